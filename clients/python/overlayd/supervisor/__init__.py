"""`overlayd-serve`: starts a server, tells systemd of it, saves its upper and ends it in order."""
