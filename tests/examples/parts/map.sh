# Part of try.sh: map.py.
same "map.py" packets.map "$(inside packets map.py packets.json)"
same "map.py, an object" sealed.map "$(inside sealed map.py sealed.json)"
