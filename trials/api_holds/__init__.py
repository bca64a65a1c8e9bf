"""What trials/api-holds is made of: an API description with what it allows, requests that are drawn, and the program that answers them."""
