%%
weigh: 'a
