"""python3 -m feulgama"""
import sys

from feulgama.cli import main

sys.exit(main())
