# The command lambda_local, for a container in which your tests or functions run: docker build -t lambda_local URL.
# (examples/container is a service that other containers call.) It downloads nothing beside its base image. On another
# machine than x86-64 Linux, such as a Mac: docker build --platform linux/amd64.
FROM python:3.12-slim-bookworm
RUN --mount=type=bind,target=/src pip install --no-index --no-cache-dir /src
ENTRYPOINT ["lambda_local"]
CMD ["--help"]
