Feature: a store
  Scenario: keeps
    Given a store
    Then it keeps 1
  Scenario: fails
    Given a store
    Then it keeps 2
  Scenario: is pending
    Given a later store
  Scenario: has an unknown step
    Given a shop
