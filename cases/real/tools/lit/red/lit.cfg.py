import lit.formats

config.name, config.suffixes, config.test_format = "demo", [".test"], lit.formats.ShTest()
