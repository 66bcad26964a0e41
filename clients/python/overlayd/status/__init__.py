"""`overlayd-status`: tells how a server does."""
