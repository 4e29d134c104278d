Feature: with a hook that fails
  Scenario: never runs
    Given a store
