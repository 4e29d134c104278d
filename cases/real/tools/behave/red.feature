Feature: a store
  Scenario: keeps
    Given a store
    Then it keeps 1
  Scenario: fails
    Given a store
    Then it keeps 2
  Scenario: has an unknown step
    Given a shop
  @skip
  Scenario: is skipped
    Given a store
