"""What certificates and routings say, for people: figures, pictures, pages and tables."""
