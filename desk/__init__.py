"""What people use around the proved programs: packing, calling, checking what comes back, and showing it."""
