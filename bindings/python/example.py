"""Formats a text, or says where it is wrong."""
import wac

try:
    print(wac.Front().tidy("package a:b; let x y;"), end="")
except wac.WacError as error:
    print(f"{error.span}: {error}")
