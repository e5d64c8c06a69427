  
-- and a comment
