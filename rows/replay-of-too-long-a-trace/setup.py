with open("t", "wb") as file:
    file.truncate(67108865)
