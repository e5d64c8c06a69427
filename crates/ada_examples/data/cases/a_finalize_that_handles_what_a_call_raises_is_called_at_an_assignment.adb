with Ada.Finalization; with Ada.Text_IO;
procedure Main is
   type Counter is new Ada.Finalization.Controlled with record Value : Integer := 0; end record;
   overriding procedure Finalize (Object : in out Counter);
   procedure Raise_By_One (Value : in out Integer) is
   begin
      Value := Value + 1;
   end Raise_By_One;
   overriding procedure Finalize (Object : in out Counter) is
   begin
      Raise_By_One (Object.Value);
      Ada.Text_IO.Put_Line (Integer'Image (Object.Value));
   exception
      when Constraint_Error => Ada.Text_IO.Put_Line ("as large as can be");
   end Finalize;
   A : Counter;
   B : Counter;
begin
   A.Value := 2_147_483_647;
   A := B;
   Ada.Text_IO.Put_Line ("assigned");
end Main;
