"""Networks and demands from files of other formats, and into them."""
