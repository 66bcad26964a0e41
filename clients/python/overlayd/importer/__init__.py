"""`overlayd-import`: manifests from directories, layer tars and container images."""
