"""A handler of your own: `examples/runtime.py handler.greet` serves it, and so does `./lambda_local up
examples/up.json`."""


def greet(event, context):
    return {"greeting": f"Hello, {event.get('name', 'world')}!"}
