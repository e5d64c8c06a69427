with Ada.Finalization; with Ada.Text_IO; with Ada.Unchecked_Deallocation;
procedure Main is
   type Shoe is record Size : Integer := 40; end record;
   type Lace is access Shoe;
   type Pair is new Ada.Finalization.Controlled with record Left : Lace; Right : Lace; end record;
   overriding procedure Adjust (Object : in out Pair);
   overriding procedure Finalize (Object : in out Pair);
   procedure Free is new Ada.Unchecked_Deallocation (Shoe, Lace);
   overriding procedure Adjust (Object : in out Pair) is
   begin
      if Object.Left = null or Object.Right = null then
         Object.Left := null;
         Object.Right := null;
      else
         begin
            Object.Left := new Shoe'(Size => Object.Left.Size);
            Object.Right := new Shoe'(Size => Object.Right.Size);
         exception
            when Storage_Error =>
               Object.Left := null;
               Object.Right := null;
         end;
      end if;
   exception
      when Constraint_Error =>
         Object.Left := null;
         Object.Right := null;
   end Adjust;
   overriding procedure Finalize (Object : in out Pair) is
   begin
      Free (Object.Right);
      Free (Object.Left);
   end Finalize;
   Worn : Pair;
   Spare : Pair;
begin
   Worn.Left := new Shoe'(Size => 41);
   Spare := Worn;
   if Spare.Left = null then
      Worn.Right := new Shoe;
      Spare := Worn;
      Ada.Text_IO.Put_Line (Integer'Image (Spare.Left.Size));
      Ada.Text_IO.Put_Line (Integer'Image (Spare.Right.Size));
   end if;
end Main;
