"""Tests of the program: what it prints, the files it leaves, and what it does when a device fails or it is killed."""
