with open("img", "wb") as file:
    file.truncate(16777217)
