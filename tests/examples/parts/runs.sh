# Part of try.sh: each script on a hundred random firmwares and their runs.
holds runs.py python3 "$here/runs.py" "$program"
