"$examples" list
