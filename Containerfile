# An image with graphql-check, and with the programs that are built, from the package that scripts/package makes:
#     scripts/package && podman build -t graphql-check .
#     podman run --rm -v "$PWD:/repository" graphql-check
FROM debian:bookworm-slim
COPY .built/packages/graphql-checked_*_amd64.deb /tmp/
RUN apt-get update \
 && apt-get install -y --no-install-recommends python3 python3-yaml git /tmp/graphql-checked_*_amd64.deb \
 && rm -rf /var/lib/apt/lists/* /tmp/*.deb
WORKDIR /repository
ENTRYPOINT ["graphql-check"]
