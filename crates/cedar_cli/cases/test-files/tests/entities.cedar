[{uid: User::"alice", parents: [Group::"staff"]}]
