permit(principal, action, resource) when { principal in Group::"top" };
permit(principal, action == Action::"any", resource) when { principal in [Group::"other", Group::"mid"] };
forbid(principal, action == Action::"bad", resource) when { principal in "x" };
