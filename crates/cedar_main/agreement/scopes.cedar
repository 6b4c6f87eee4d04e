permit(principal == User::"alice", action == Action::"view", resource == Photo::"p1");
permit(principal in Group::"staff", action in [Action::"view", Action::"edit"], resource);
permit(principal is Admin, action, resource);
permit(principal is User in Group::"owners", action, resource is Album);
forbid(principal, action == Action::"delete", resource in Album::"kept");
