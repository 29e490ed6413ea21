"""Every kind and its mirror, by number."""
from fields import Mirror, kinds

EVERY = {k.number: k for kind in kinds() for k in (kind, Mirror(kind))}
