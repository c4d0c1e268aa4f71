"""The parts of ./check_document."""
