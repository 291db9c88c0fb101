# The program alone, over a C library (glibc 2.34 or later). Build the program first, by ./etcd_one --build, and then at the top:
#
#     podman build --tag etcd_one .
#     podman run --init --publish 127.0.0.1:2379:2379 etcd_one
#
# `--init`, since the program has no handler for SIGTERM, which the first process of a container does not heed without one. Within the
# container it listens on every address, so that a published port reaches it.
FROM docker.io/library/debian:12-slim
COPY crates/etcd_one/out/etcd_one /usr/local/bin/etcd_one
EXPOSE 2379
ENTRYPOINT ["/usr/local/bin/etcd_one"]
CMD ["serve", "--listen", "0.0.0.0:2379"]
