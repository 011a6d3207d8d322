"""Tests of mdlc-import."""
