"""What runs the built programs and looks at how they end. From the top of the repository

    python3 -m unittest [-v]                 runs all of it
    python3 -m unittest tests.test_NAME      runs one file

The environment variables INTERP, NFQ, CIRCUIT, BATCH and STEAL name programs to try in place of those that are built
here. Without them a program that is missing or older than its sources is proved and built first. What cannot run is
skipped, and -v tells why. Behind the tests of a class stands how many cases there were, and how many runs.
"""
