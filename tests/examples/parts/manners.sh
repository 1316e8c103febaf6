# Part of try.sh: how each script meets its caller.
holds manners_rows.py python3 "$here/manners_rows.py" "$program"
