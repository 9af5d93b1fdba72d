"""What the measures have in common."""
