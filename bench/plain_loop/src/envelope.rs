//! The members of Cucumber Messages that an audit judges. All others are passed over unread.
#![allow(dead_code)]
use serde::Deserialize;

#[derive(Deserialize)]
#[serde(rename_all = "camelCase")]
pub struct Envelope {
    source: Option<Source>,
    gherkin_document: Option<GherkinDocument>,
    parse_error: Option<ParseError>,
    pickle: Option<Pickle>,
    step_definition: Option<Declared>,
    hook: Option<Declared>,
    test_run_started: Option<TestRunStarted>,
    test_case: Option<TestCase>,
    test_case_started: Option<TestCaseStarted>,
    test_step_started: Option<TestStepStarted>,
    test_step_finished: Option<TestStepFinished>,
    test_case_finished: Option<TestCaseFinished>,
    test_run_hook_started: Option<TestRunHookStarted>,
    test_run_hook_finished: Option<TestRunHookFinished>,
    test_run_finished: Option<TestRunFinished>,
}

impl Envelope {
    pub fn is_judged(&self) -> bool {
        self.source.is_some()
            || self.gherkin_document.is_some()
            || self.parse_error.is_some()
            || self.pickle.is_some()
            || self.step_definition.is_some()
            || self.hook.is_some()
            || self.test_run_started.is_some()
            || self.test_case.is_some()
            || self.test_case_started.is_some()
            || self.test_step_started.is_some()
            || self.test_step_finished.is_some()
            || self.test_case_finished.is_some()
            || self.test_run_hook_started.is_some()
            || self.test_run_hook_finished.is_some()
            || self.test_run_finished.is_some()
    }
}

#[derive(Deserialize)]
#[serde(rename_all = "camelCase")]
struct Source {
    uri: String,
    data: String,
    media_type: String,
}

#[derive(Deserialize)]
struct ParseError {
    source: ErrorSource,
}

#[derive(Deserialize)]
struct ErrorSource {
    uri: String,
}

#[derive(Deserialize)]
struct Declared {
    id: String,
}

#[derive(Deserialize)]
struct TestRunStarted {}

#[derive(Deserialize)]
struct Location {
    line: u64,
    column: Option<u64>,
}

#[derive(Deserialize)]
struct GherkinDocument {
    uri: String,
    feature: Option<Feature>,
    comments: Vec<Comment>,
}

#[derive(Deserialize)]
struct Comment {
    location: Location,
    text: String,
}

#[derive(Deserialize)]
struct Tag {
    id: String,
    location: Location,
    name: String,
}

#[derive(Deserialize)]
struct Feature {
    location: Location,
    tags: Vec<Tag>,
    language: String,
    keyword: String,
    name: String,
    description: String,
    children: Vec<Child>,
}

#[derive(Deserialize)]
struct Child {
    background: Option<Background>,
    scenario: Option<Scenario>,
    rule: Option<Rule>,
}

#[derive(Deserialize)]
struct Rule {
    id: String,
    location: Location,
    tags: Vec<Tag>,
    keyword: String,
    name: String,
    description: String,
    children: Vec<Child>,
}

#[derive(Deserialize)]
struct Background {
    id: String,
    location: Location,
    keyword: String,
    name: String,
    description: String,
    steps: Vec<Step>,
}

#[derive(Deserialize)]
struct Scenario {
    id: String,
    location: Location,
    tags: Vec<Tag>,
    keyword: String,
    name: String,
    description: String,
    steps: Vec<Step>,
    examples: Vec<Examples>,
}

#[derive(Deserialize)]
#[serde(rename_all = "camelCase")]
struct Examples {
    id: String,
    location: Location,
    tags: Vec<Tag>,
    keyword: String,
    name: String,
    description: String,
    table_header: Option<Row>,
    table_body: Vec<Row>,
}

#[derive(Deserialize)]
#[serde(rename_all = "camelCase")]
struct Step {
    id: String,
    location: Location,
    keyword: String,
    keyword_type: Option<String>,
    text: String,
    doc_string: Option<DocString>,
    data_table: Option<DataTable>,
}

#[derive(Deserialize)]
#[serde(rename_all = "camelCase")]
struct DocString {
    location: Location,
    media_type: Option<String>,
    content: String,
    delimiter: String,
}

#[derive(Deserialize)]
struct DataTable {
    location: Location,
    rows: Vec<Row>,
}

#[derive(Deserialize)]
struct Row {
    id: String,
    location: Location,
    cells: Vec<Cell>,
}

#[derive(Deserialize)]
struct Cell {
    location: Location,
    value: String,
}

#[derive(Deserialize)]
#[serde(rename_all = "camelCase")]
struct Pickle {
    id: String,
    uri: String,
    name: String,
    language: String,
    ast_node_ids: Vec<String>,
    tags: Vec<PickleTag>,
    steps: Vec<PickleStep>,
}

#[derive(Deserialize)]
#[serde(rename_all = "camelCase")]
struct PickleTag {
    name: String,
    ast_node_id: String,
}

#[derive(Deserialize)]
#[serde(rename_all = "camelCase")]
struct PickleStep {
    id: String,
    text: String,
    r#type: Option<String>,
    ast_node_ids: Vec<String>,
    argument: Option<PickleArgument>,
}

#[derive(Deserialize)]
#[serde(rename_all = "camelCase")]
struct PickleArgument {
    doc_string: Option<PickleDocString>,
    data_table: Option<PickleTable>,
}

#[derive(Deserialize)]
#[serde(rename_all = "camelCase")]
struct PickleDocString {
    content: String,
    media_type: Option<String>,
}

#[derive(Deserialize)]
struct PickleTable {
    rows: Vec<PickleRow>,
}

#[derive(Deserialize)]
struct PickleRow {
    cells: Vec<PickleCell>,
}

#[derive(Deserialize)]
struct PickleCell {
    value: String,
}

#[derive(Deserialize)]
#[serde(rename_all = "camelCase")]
struct TestCase {
    id: String,
    pickle_id: String,
    test_steps: Vec<TestStep>,
}

#[derive(Deserialize)]
#[serde(rename_all = "camelCase")]
struct TestStep {
    id: String,
    pickle_step_id: Option<String>,
    hook_id: Option<String>,
    step_definition_ids: Option<Vec<String>>,
}

#[derive(Deserialize)]
#[serde(rename_all = "camelCase")]
struct TestCaseStarted {
    id: String,
    test_case_id: String,
    attempt: u64,
}

#[derive(Deserialize)]
#[serde(rename_all = "camelCase")]
struct TestStepStarted {
    test_case_started_id: String,
    test_step_id: String,
}

#[derive(Deserialize)]
#[serde(rename_all = "camelCase")]
struct TestStepFinished {
    test_case_started_id: String,
    test_step_id: String,
    test_step_result: TestStepResult,
}

#[derive(Deserialize)]
struct TestStepResult {
    status: String,
}

#[derive(Deserialize)]
#[serde(rename_all = "camelCase")]
struct TestCaseFinished {
    test_case_started_id: String,
    will_be_retried: bool,
}

#[derive(Deserialize)]
#[serde(rename_all = "camelCase")]
struct TestRunHookStarted {
    id: String,
    hook_id: String,
}

#[derive(Deserialize)]
#[serde(rename_all = "camelCase")]
struct TestRunHookFinished {
    test_run_hook_started_id: String,
    result: TestStepResult,
}

#[derive(Deserialize)]
struct TestRunFinished {
    success: bool,
    exception: Option<Exception>,
}

#[derive(Deserialize)]
struct Exception {}
