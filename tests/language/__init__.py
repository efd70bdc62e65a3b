"""A small parser of the language: it reads the sources (.rt) and the definitions of specs/ (.antt), and finds what follows
from their texts."""
