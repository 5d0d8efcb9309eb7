"""What scripts/show_schedule.py is made of: replays, the contradiction in words, pictures of lanes and trees,
and the page."""
