printf '* TODO a :\342\200\256-x:\n* TODO b :\363\240\201\201-y:\n' > hostile.org
