"""A decision point over HTTP, by a session of the Cedar authorizer in each of several processes.

    python3 -m cedar_server policies/                                  over a folder of policies and entities
    python3 -m cedar_server --database URL --log shop                  one of many, by one log of edits

docs/SERVICE.md has the calls, what they answer and what is promised. It stands on Starlette, uvicorn and gunicorn: the plainest framework of
ASGI, the server that most run it by, and a supervisor that begins anew what ends or falls silent. Debian has all three."""
