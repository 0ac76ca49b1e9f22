# A container with rosie and the tools beside it, from the Debian package that `make dist` makes:
#     podman build -t rosie .
#     podman run --rm -i -v "$PWD:/work" rosie grep '"ERROR"' app.log
# BASE is any image of Debian, or of a system made from it, with a C library that is new enough.
ARG BASE=docker.io/library/debian:stable-slim
FROM $BASE
COPY dist/rosie_*.deb /tmp/
RUN apt-get update && apt-get install -y --no-install-recommends /tmp/rosie_*.deb && rm -rf /tmp/rosie_*.deb /var/lib/apt/lists/*
WORKDIR /work
ENTRYPOINT ["rosie"]
