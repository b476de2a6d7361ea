#!/usr/bin/env python3
import os
import sys

sys.dont_write_bytecode = True
sys.path[0] = os.path.join(os.path.dirname(os.path.realpath(__file__)), os.pardir, os.pardir, "tools")

from common import launch

launch.main("reference.commands")
