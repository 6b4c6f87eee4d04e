permit(principal == User::"alice", action, resource);
