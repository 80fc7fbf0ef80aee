"$examples" recorder
