Feature: f
  Scenario: s
    Given <a>
    Examples:
      | a |
      | x |
      | x |
      | y |
