@id("viewer")
permit(principal == ?principal, action == Action::"read", resource == ?resource);
