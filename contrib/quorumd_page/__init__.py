"""The parts of quorumd-page: what a host knows of its cluster, what happened, and how both are shown."""
