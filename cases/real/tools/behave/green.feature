Feature: a store
  Scenario: keeps
    Given a store
    Then it keeps 1
