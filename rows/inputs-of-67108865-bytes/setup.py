for i in range(4):
    with open(f"i{i}", "wb") as file:
        file.truncate(16777216)
with open("s", "wb") as file:
    file.write(b"x")
