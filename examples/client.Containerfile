# A client in a container; the server runs outside, as overlayd.service does, and the container gets
# its socket alone. The unit's socket is root's; with the drop-in that it names, and at the top of
# the repository:
#
#     docker build -f examples/client.Containerfile -t overlayd-client .
#     docker run --rm --group-add "$(getent group overlayd | cut -d: -f3)" \
#         -v /run/overlayd:/run/overlayd overlayd-client
#
# A program that knows nothing of the socket needs no client: with the bridge outside, as root, its
# container gets the mount as a volume (clients/fuse/README.md):
#
#     overlayd-fuse /run/overlayd/overlay.socket /mnt
#     docker run --rm -v /mnt:/work debian:12 ls -l /work
#
# overlayd is no storage driver: no runtime asks it for a container's own root file system.
FROM python:3.9-slim
COPY clients/python/overlayd /usr/local/lib/overlayd/overlayd
COPY clients/python/examples/watch_and_change.py /usr/local/lib/overlayd/
ENV PYTHONPATH=/usr/local/lib/overlayd
USER nobody
ENTRYPOINT ["python3", "/usr/local/lib/overlayd/watch_and_change.py"]
CMD ["/run/overlayd/overlay.socket"]
