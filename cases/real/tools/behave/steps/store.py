from behave import given, then


@given("a store")
def store(context):
    context.kept = 1
    print("a store")


@then("it keeps {number:d}")
def keeps(context, number):
    assert context.kept == number, f"it keeps {context.kept}"
