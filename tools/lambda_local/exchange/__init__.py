"""What is asked of ports of this machine by HTTP/1.1: the one client that the tools have.

`connection` has a request and its answer, `of_threads` a connection of a thread, which needs no asyncio, `of_tasks` one
of a task, and `client` connections of tasks that are kept."""
