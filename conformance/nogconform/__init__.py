"""The conformance kit: it compares replies of this project and another system to the same calls."""
