"""The hoof book's text form: tables, foreign keys and calls as lines that people read."""
