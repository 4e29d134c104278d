def before_feature(context, feature):
    if "hook" in feature.filename:
        raise RuntimeError("cannot set up")
