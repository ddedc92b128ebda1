# The program, the companion and their man pages on Debian: podman build -t si-audit . && podman run -i si-audit <run.history
FROM debian:bookworm-slim AS made
RUN apt-get update && apt-get install --yes --no-install-recommends make
COPY . /source
RUN make -C /source install DESTDIR=/made PREFIX=/usr/local

FROM debian:bookworm-slim
RUN apt-get update && apt-get install --yes --no-install-recommends python3 && rm -rf /var/lib/apt/lists/*
COPY --from=made /made /
USER nobody
ENTRYPOINT ["si_audit"]
