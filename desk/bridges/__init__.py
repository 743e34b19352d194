"""The modules of desk/openvswitch: desk/bridges/README.md says what they do."""
